"""The parts of tools/lent_proofs."""
