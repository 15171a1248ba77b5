"""The identity server read a second time: plain, slow, and from the documents alone. `machine.Machine` answers calls."""
