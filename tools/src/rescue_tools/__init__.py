"""Programs beside `rescue`: one shows a run, one sweeps many."""
