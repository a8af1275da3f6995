"""What builders of fgate check their code, proofs and documents with."""
