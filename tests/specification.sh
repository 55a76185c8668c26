#!/usr/bin/env bash
# docs/SPECIFICATION.md is the map from documents 01 and 02 to the definitions: tests/specification.py says what holds of it.
cd "$(dirname "$0")/.." && exec python3 tests/specification.py
