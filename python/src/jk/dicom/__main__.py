"""python -m jk.dicom."""
import sys

from .._scripts import dicom

sys.exit(dicom())
