# Makes a file of the library Rust: what only proofs read goes, and so does the derive by which Rattle lets a value go.
/^ *ghost use /d
/^ *\(pub \)\{0,1\}ghost [a-z_]*: { .* },$/d
/^#!\{0,1\}\[tactic(/d
/^ *\(requires\|ensures\)\( [a-z_0-9]\{1,\}\)\{0,1\} { /{
:contract
/ }$/!{
N
b contract
}
d
}
/^#\[derive(Drop)\]$/d
s/^\(#\[derive(.*\), Drop)\]$/\1)]/
