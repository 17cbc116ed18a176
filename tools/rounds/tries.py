"""The edits of one crate, tried by rounds: in each, at most one edit of a function, all of them in one check."""
from rounds import logs, standins
from rounds.checks import Fault
from rounds.functions import Sources, names_of
from rounds.logs import BY_NAME, LET_THROUGH, NOT_JUDGED, REFUSED, WAITS


class Try:
    """An edit that is to be tried: the functions that it changes (None: it changes something else, and is tried alone), and the functions
    whose proof it waits for."""

    def __init__(self, edit, functions):
        self.edit, self.functions, self.waits = edit, functions, set()
        self.is_alone = functions is None
        self.verdict, self.why, self.seconds = None, "", None

    def place(self):
        return ", ".join(each.key for each in self.functions) if self.functions else self.edit.pairs[0][0]

    def judge(self, verdict, why=""):
        self.verdict, self.why = verdict, why


class Tries:
    """All tries of a crate."""

    def __init__(self, checks, edits):
        self.checks, self.sources, self.rounds = checks, Sources(checks.text_of), 0
        self.tries, self.names = [], {}
        # Whether a round checks only what is edited, and what that calls: so it is where nothing is kept that the rest could be taken from.
        # Then stand-ins are put for all other proofs, in these folders of each function, unless the prover refuses them.
        self.is_partial, self.has_stand_ins, self.places = False, True, None
        # (a round that cannot be read as a whole is halved)
        self.most = len(edits)
        for edit in edits:
            why = edit.fault(checks.text_of)
            one = Try(edit, None if why else self.sources.edited(edit))
            if why:
                one.judge(NOT_JUDGED, f"it cannot be applied: {why}")
            self.tries.append(one)

    def left(self):
        return [one for one in self.tries if not one.verdict]

    def fits(self, one, chosen, used):
        """Whether a try fits into a round: no other changes its function or one of its cycle, none waits for it, and it waits for none."""
        if one.is_alone or len(chosen) >= self.most or used.intersection(one.functions) or self.proofs(used).intersection(self.proofs(one.functions)):
            return False
        own = {name for each in one.functions for name in self.names.get(each, ())}
        theirs = {name for each in used for name in self.names.get(each, ())}
        return not one.waits & theirs and not any(each.waits & own for each in chosen)

    def proofs(self, functions):
        """The names of the proofs of cycles that these functions are in."""
        return {name for each in functions for name in each.proofs(self.checks.name)}

    def next_round(self):
        """The tries of the next round, and the changed files; those that are tried alone come last."""
        chosen, used, texts = [], set(), {}
        left = self.left()
        for one in left:
            if self.fits(one, chosen, used):
                changed, why = one.edit.applied(lambda path: texts.get(path) or self.checks.text_of(path))
                if not why:
                    chosen.append(one)
                    used.update(one.functions)
                    texts.update(changed)
        if not chosen:
            chosen, texts = left[:1], left[0].edit.applied(self.checks.text_of)[0]
        return chosen, texts

    def base(self, is_proved):
        """Sees that the crate is proved without an edit, unless that is known: then a round checks only what it edits; but a check without an
        edit comes first where some edits change more than the bodies of functions, which a check of the whole crate has to tell of."""
        if not is_proved or not self.checks.is_ready():
            self.checks.prove()
        elif any(one.is_alone for one in self.left()):
            log = self.checks.check({})
            if log.status:
                raise Fault(f"it is not proved without an edit: {log.why_none() if not log.has_verdict() else log.last}")
        else:
            self.is_partial = True

    def only(self, chosen):
        """The paths of the functions that a round has to check, or none where it checks all."""
        if not self.is_partial or any(one.functions is None for one in chosen):
            return []
        ours = [each for one in chosen for each in one.functions]
        known = [[name for name in self.names.get(each, ()) if "::fn::" not in name] or [each.path()] for each in ours]
        return [] if [None] in known else list(dict.fromkeys(path for paths in known for path in paths))

    def stands(self, chosen, only):
        """The folders below proofs/ where a round puts stand-ins: those of all functions that it does not edit."""
        if not only or not self.has_stand_ins:
            return []
        if self.places is None:
            self.places = standins.places(self.checks.name, self.checks.plain, self.sources, self.checks.files())
        edited = {each for one in chosen for each in one.functions}
        return [path for each, paths in self.places.items() if each not in edited for path in paths]

    def run(self, say):
        """Tries all."""
        while self.left():
            chosen, texts = self.next_round()
            self.rounds += 1
            only = self.only(chosen)
            stands = self.stands(chosen, only)
            log = self.checks.check(texts, only, stands, f"round-{self.rounds}", [one.edit.name for one in chosen])
            why = ""
            if stands and not log.has_verdict() and not log.broken:
                # (a folder is for no function)
                self.has_stand_ins, why = False, f", without stand-ins, since {log.why_none()}"
            elif only and not log.has_verdict() and not log.broken:
                # (a path fits no function, or several)
                self.is_partial, why = False, ", without --only"
            elif not log.has_verdict():
                why = self.read_broken(log, chosen)
            elif len(chosen) == 1 and not stands:
                self.read_alone(log, chosen[0])
            else:
                why = self.read(log, chosen, stands)
            again = sum(not one.verdict for one in chosen)
            if len(chosen) > 1:
                say(f"{self.checks.name}: round {self.rounds}: {len(chosen)} edits at once" + (f", {again} of them once more{why}" if again else ""))

    def broken(self):
        """The tries of edits that do not compile. A check of no function says so in seconds, and proves nothing."""
        found = []
        while self.left():
            chosen, texts = self.next_round()
            log = self.checks.check(texts, [""], name=f"compile-{len(found)}", edits=[one.edit.name for one in chosen])
            if log.broken:
                self.read_broken(log, chosen)
            elif log.status in (0, 1):
                for one in chosen:
                    one.judge(REFUSED)
            else:
                raise Fault(log.why_none())
            found += [one for one in chosen if one.verdict not in (None, REFUSED)]
        return found

    def halve(self, chosen):
        self.most = max(1, len(chosen) // 2)

    def read_broken(self, log, chosen):
        """What a log says that ends without a verdict; returns why edits are tried again."""
        blamed = [one for one in chosen if len(chosen) == 1 or any(self.has_line(one, file, line) for file, line, _ in log.broken)]
        for one in blamed if log.broken else []:
            mine = [each for each in log.broken if self.has_line(one, each[0], each[1])] or log.broken
            one.judge(BY_NAME, "it does not compile: {}:{}: {}".format(*mine[0])[:200])
        if not log.broken and len(chosen) == 1:
            chosen[0].judge(NOT_JUDGED, log.why_none())
        if blamed and log.broken:
            return ", since one does not compile"
        self.halve(chosen)
        return f", half as many at a time, since {log.why_none()}"

    def has_line(self, one, file, line):
        return one.functions is not None and self.sources.at_line(file, line) in one.functions

    def read(self, log, chosen, stands):
        """What a log says of several edits; returns why all of them are tried again, if they are."""
        self.names = names_of(self.checks.name, self.sources.all(self.checks.files()), log.of)
        edited = {each for one in chosen for each in one.functions}
        theirs = {name for each in edited for name in self.names.get(each, ())}
        strange = [name for name, text in log.of.items() if name not in theirs and logs.is_open(name, text)]
        if strange and stands:
            self.has_stand_ins = False
            return f", without stand-ins, since {strange[0]} is not proved either: {log.of[strange[0]][:90]}"
        if strange:
            self.halve(chosen)
            return f", half as many at a time, since {strange[0]} is not proved either: {log.of[strange[0]][:90]}"
        for one in chosen:
            self.read_one(log, one, len(chosen) == 1)
        return ""

    def read_alone(self, log, one):
        """What a log says of the one edit, in which no stand-in is: all that it says counts."""
        self.names = names_of(self.checks.name, self.sources.all(self.checks.files()), log.of)
        if all(self.names[each] for each in one.functions or ()):
            one.judge(*logs.of_crate(log))
        else:
            one.judge(NOT_JUDGED, "the check's log has no line of its function")

    def read_one(self, log, one, is_last):
        """What a log says of an edit by the lines of its functions. Unless it was the only one of its round, it is tried again where that is
        no verdict, or where it may be for another's sake."""
        names = [name for each in one.functions for name in self.names[each]]
        spans = [(each.file, *self.sources.span(each)) for each in one.functions]
        verdict, why = logs.of_functions(log, names, self.checks.name, spans, self.proofs(one.functions))
        one.seconds = sum(log.took.get(name, 0) for name in names)
        if verdict == WAITS and (is_last or one.waits.issuperset(why)):
            one.judge(NOT_JUDGED, f"it waits for {why[0]}")
        elif verdict == WAITS:
            one.waits.update(why)
        elif verdict in (REFUSED, LET_THROUGH) or is_last:
            one.judge(verdict, why)
        else:
            # (what it lacks may be another's)
            one.is_alone = True
