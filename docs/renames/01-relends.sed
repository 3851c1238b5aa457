# Run on each file that imports `IsLent` of `pipe_model` and not that of `element_ledger`, and on `pipe_model/specs/Lending.antt` itself:
#   sed -i -f docs/renames/01-relends.sed $(grep -rlE 'pipe_model\.specs\.Lending\..*\bIsLent\b' crates --include=*.antt --include=*.rt) crates/pipe_model/specs/Lending.antt
s/\bIsLent\b/RelendsOnlyDone/g
