"""Programs of this source without proofs: compiled by the kit's own compiler and LLVM, and where programs are found."""
