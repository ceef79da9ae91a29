"""Certificates for a class's own monitor: a sitting beside it tells nothing of a secret word.

>>> from array import array
>>> import fanthrig
>>> from fanthrig import certifying
>>> memory = array("H", bytes(2 * fanthrig.MEMORY_WORDS))
>>> fanthrig.monitor(memory)
>>> monitor = fanthrig.save(memory, 0, fanthrig.MONITOR_WORDS)
>>> made = certifying.certificate_of([("monitor.obj", monitor)])
>>> made.tested().finding.name, f"x{made.lowest:04X}"
('CERTIFIED', 'x2FFA')
>>> print(made.summary()[0])
secret: x02A5 to x2FF5, xFE00 to xFFFF

``certificate_of`` makes a table of what is known at each word of the monitor's routines, and has
the proved test of the library check it: ``fanthrig.certify``. Only that answer counts; the maker is
not trusted. A monitor that leaks, or that can't be followed, is ``NotCertified``, with a
``Problem`` for each place. docs/CERTIFY.md says what is certified, and what is not.

Of each part one module has the work: ``claims`` (which words are fixed, own or secret), ``domain``
(what is known of values), ``following`` (the routines, word by word), ``making`` (the table),
``certificate`` (the file, and its hash), ``problems`` (what is wrong, in words).
"""

from .certificate import Certificate, CertificateError
from .claims import Cell, Declared, words_of
from .making import certificate_of, check_secret, check_test, check_whole, differences
from .problems import NotCertified, Problem

__all__ = [
    "Cell",
    "Certificate",
    "CertificateError",
    "Declared",
    "NotCertified",
    "Problem",
    "certificate_of",
    "check_secret",
    "check_test",
    "check_whole",
    "differences",
    "words_of",
]
