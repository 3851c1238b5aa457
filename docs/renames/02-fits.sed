# Run on each file of `world_core` that names `IsBuilt`, which is `pipe_model`'s `Fits` now; `rattle check --fix-imports` drops an import that stands twice:
#   sed -i -E -f docs/renames/02-fits.sed $(grep -rlw IsBuilt crates/world_core --include=*.antt --include=*.rt)
s/^((ghost )?use )Rattle\.world_core\.specs\.Played\.\{IsBuilt\}/\1Rattle.pipe_model.specs.Fits.{Fits}/
s/^((ghost )?use )(Rattle\.world_core\.specs\.Played\.\{)IsBuilt, (.*)$/\1Rattle.pipe_model.specs.Fits.{Fits}\n\1\3\4/
s/^((ghost )?use )(Rattle\.world_core\.specs\.Played\.\{.*), IsBuilt\b(.*)$/\1Rattle.pipe_model.specs.Fits.{Fits}\n\1\3\4/
s/\bIsBuilt\b/Fits/g
