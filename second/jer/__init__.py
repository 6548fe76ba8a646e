"""The second program: reads and writes ASN.1 values in JSON by document 01 and X.697."""
