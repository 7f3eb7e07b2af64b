"""A recorded connection as a page, in numbers, and by its tables: the modules of qpk-report.

What bytes mean is read by qpk alone. recording runs it, capture has a capture decrypted, and connection puts together what
qpk printed, for the traces of qpk-capture too; lines reads the lines of sections. page, with columns and verdict, stats, again
and table make the answers of the commands, whose words are in words. The scripts of the page are joined in the order that
page.py names. qpack.css and element.js are also those of examples/http3-server.
"""

from qpk.main import Refusal


class ReportError(Refusal):
    """There is no answer, for this reason."""
