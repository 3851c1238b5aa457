# Lemmas of `pipe_model` and `side_core` stand in folders, each entered by its door. Run on each file of another crate that cites them:
#   sed -i -E -f docs/renames/03-folders.sed $(grep -rlE 'Rattle\.(pipe_model|side_core)\.proofs\.' crates --include=*.antt --include=*.rt | grep -vE '^crates/(pipe_model|side_core)/')
s/Rattle\.pipe_model\.proofs\.(Carried|Chains|Facts|FewSnapshots|Items|Joins|Lasting|Near|Parts|Quiet|Settled|Shuts|Sound|Spelling|ToldLast|Unswallowed|Whole)\.\{/Rattle.pipe_model.proofs.Pipes.{/
s/Rattle\.pipe_model\.proofs\.(LawfulSteps|Declines|KeptCauses)\.\{/Rattle.pipe_model.proofs.Lawful.{/
s/Rattle\.side_core\.proofs\.(Seats|Tokens|Tables|Shelving|Hands|Acts|Halves|Arriving)\.\{/Rattle.side_core.proofs.Sockets.{/
s/Rattle\.side_core\.proofs\.(OneRmb|Counting|Verdicts|Loans|Offering|Beginning)\.\{/Rattle.side_core.proofs.Elements.{/
s/Rattle\.side_core\.proofs\.(Keeping|Acting|Standing|Workings|Doings|Dues)\.\{/Rattle.side_core.proofs.Ends.{/
s/Rattle\.side_core\.proofs\.(Allowed|Carries|Managing|News|Newly|Hearing|Steps|Confirms|Takes|Linking|Confirming|Handing|Judging)\.\{/Rattle.side_core.proofs.Managers.{/
