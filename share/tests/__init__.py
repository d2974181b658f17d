"""Tests of sharing, with the real program, real logs and real terminals."""
