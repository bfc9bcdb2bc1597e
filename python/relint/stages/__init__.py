"""The stages of `rlt check`, in order, and the workers that read sources for them."""
