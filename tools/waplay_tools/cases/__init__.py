"""The cases below tests/cases: sessions with what they must give, as data.

tests/README.md says what a case is, and tests/case.schema.json which members it has.
"""
