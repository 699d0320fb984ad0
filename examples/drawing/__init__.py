"""What examples/draw is made of.

`trace` reads a trace's lines, `topic` carries the topic's state from entry to entry, and `words` tells an entry in words.

`timeline` makes lines over the entries of it, and says what it shows; `chart` draws these. `story` puts the entries into lanes and
columns, which `strips` draws. Both draw on a `canvas`. `page` makes the page, in which `state.js` tells the state at an entry,
`chart.js` draws the chart to the width of the window, and `page.js` goes from entry to entry.
"""
