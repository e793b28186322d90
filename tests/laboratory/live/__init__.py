"""Parts of tests/laboratory/livecard: namespaces, the wire, a running card, and what is right of it."""
