"""Makes random scripts, and compares what waplay gives for them with the second calculation.

A script and its assets hang on the seed and its number, and on which operations are read: what the
program does not read is in no script. So each script can be made again by itself.

The maker is one class, of which each module has a part: `choices` and `values` draw, `nodes`,
`parameters`, `sounds` and `suspensions` make calls, `graphs`, `effects`, `echoes` and `limits` make
the shapes of scripts.

A new operation gets a method in `nodes` and a row in OPERATIONS of `chances`, or in KINDS of
`kinds` where it makes a node: from then on other calls name nodes of the kind. One that sets an
attribute needs its row in ATTRIBUTES of `waplay_tools.expecting.sessions` alone. Its refusals get a
row in REFUSALS of `answers`, and an answer that only it gives one in ANSWERS. Where it changes what
is heard, a row in CHANGES brings it often into the lists of suspensions. A row names the operations
that its calls are: where the program does not read them, no such call is made.
"""
