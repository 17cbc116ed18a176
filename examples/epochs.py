"""Keeps the pages in use on two fast nodes: 20 epochs over 2,000 pages, of which a window of 800 is in use."""
from numalab import Machine

with Machine("2x500 + cxl 2000") as m:
    app = m.spawn("app")
    heap = app.map(2000, "heap")
    nodes = app.touch(heap, write=True)
    for epoch in range(20):
        m.note(f"epoch {epoch}")
        hot = {(100 * epoch + k) % 2000 for k in range(800)}
        rising = [k for k in sorted(hot) if nodes[k] == 2]
        falling = [k for k in range(2000) if nodes[k] != 2 and k not in hot][: len(rising)]
        m.move_pages(app, heap[falling], node="cxl")
        m.move_pages(app, heap[rising], nodes=[nodes[k] for k in falling])
        nodes = m.where(app, heap)
        m.look()
    print(m.vmstat())
    m.save("epochs.nt")
