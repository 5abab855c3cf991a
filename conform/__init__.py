"""A tester of SMB2 servers: it compares their answers with this share's. docs/CONFORMANCE.md says how."""
