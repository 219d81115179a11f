"""The second program: a model of the parts catalogue, by brute force over documents 01 and 02.

It shares nothing with the proved catalogue but the documents, and stands on nothing else here. Who
makes requests (made), runs programs (run) and compares (compared) stands on it.
"""
