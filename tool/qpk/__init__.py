"""The tool around the program qpk: it reads captures and logs, and writes pages and figures of recorded connections.

capture and report are what the scripts qpk-capture and qpk-report run. What bytes mean is read by the program alone.
"""
