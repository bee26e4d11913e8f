"""Turns listings of C# compilers' output into sources of the text profile (docs/FROM_CSHARP.md).

A listing is read to a tree (`tokens`, `reader`, `code_reader`), the tree is rewritten (one module of `rewriting` for each kind of change),
and the writer puts the translation of line N of the listing on line N of the result. What has no counterpart is refused, all of it, by line.
"""
