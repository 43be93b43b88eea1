"""Reads interface files for MIDL, as Microsoft publishes them, or for Samba's pidl, and writes them in the language of docs/IDL.md (bin/from-midl)."""
