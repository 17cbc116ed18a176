"use strict";
const found = JSON.parse(document.getElementById("data").textContent);
const by = id => document.getElementById(id);
const LINES = ["#0072b2", "#d55e00", "#009e73", "#cc79a7", "#b8860b", "#56b4e9", "#7a5195", "#8c564b", "#4d7c0f", "#be123c"];
const number = new Intl.NumberFormat("en", {maximumFractionDigits: 2});
const cost = value => value === null || value === undefined ? "-" : value.toLocaleString("en", {minimumFractionDigits: 2, maximumFractionDigits: 2});
const share = value => value === null || value === undefined ? "-" : (100 * value).toFixed(2) + "%";

// Gives each policy, an object with its label, a colour: bounds are black and grey.
function colour(policies) {
  let plain = 0;
  for (const policy of policies) policy.colour = policy.bound ? (policy.label.includes("each") ? "#111" : "#777") : LINES[plain++ % LINES.length];
}

function made(tag, parent, text, kind) {
  const one = document.createElement(tag);
  if (text !== undefined) one.textContent = text;
  if (kind) one.className = kind;
  parent.append(one);
  return one;
}

// A canvas of some size on the page, and its pen.
function canvasOf(parent, width, height, label, letters = 10) {
  const canvas = made("canvas", parent), ratio = window.devicePixelRatio || 1;
  canvas.width = width * ratio; canvas.height = height * ratio;
  canvas.style.width = width + "px"; canvas.style.height = height + "px";
  canvas.setAttribute("role", "img"); canvas.setAttribute("aria-label", label);
  const pen = canvas.getContext("2d");
  pen.scale(ratio, ratio);
  pen.font = `${letters}px "DejaVu Sans", Verdana, sans-serif`;
  return [canvas, pen];
}

// The line of a policy in a legend.
function legendLine(parent, policy) {
  const line = made("i", parent, undefined, policy.bound ? "dashed" : "");
  line.style.borderTopColor = policy.colour;
  parent.append(policy.label);
}
