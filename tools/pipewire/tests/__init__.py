"""Tests of the tools over recordings and made-up inputs; `tools/pipewire/test` runs them."""
