# What is on a wire is `InFlight`, as `rc_link` has it. Run on each file of `rc_link`, `world_core` and `smcr_tests`, their edits and pages too:
#   sed -i -E -f docs/renames/04-in-flight.sed $(grep -rlw Carried crates/rc_link crates/world_core crates/smcr_tests/src)
s/\bCarried\b/InFlight/g
s/world_core\.proofs\.InFlight\b/world_core.proofs.Carried/
s/^(pub )?mod InFlight$/\1mod Carried/
