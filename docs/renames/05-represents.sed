# What a value of the code is a value of the definitions by is `Represents`. Run on each file that has the word:
#   sed -i -E -f docs/renames/05-represents.sed $(grep -rlE '\b(Ring|End)?StandsFor\b' crates docs/PROOF-NOTES.md docs/glossary.md)
s/\b(Ring|End)?StandsFor\b/\1Represents/g
