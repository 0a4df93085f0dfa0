"""Document 01 as a program that is slow and plain: what the engine is compared with."""
