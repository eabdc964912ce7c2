"""Wrong bodies: their form, which are tried together, and what the prover says of them."""
