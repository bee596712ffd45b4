"""DICOM files that are made for tests, by pydicom."""
import numpy as np
from pydicom.dataset import Dataset, FileDataset, FileMetaDataset
from pydicom.encaps import encapsulate
from pydicom.sequence import Sequence
from pydicom.uid import CTImageStorage, ExplicitVRLittleEndian, JPEG2000Lossless

#: Text of ISO_IR 100 under another character set, which a reader that decodes it would lose.
TEXT = b"\xfcnreadable in ISO_IR 192 "


def described(frames, bits, photometric=None):
    """A data set without Pixel Data, of frames (frames, rows, columns) or (frames, rows, columns, 3)."""
    meta = FileMetaDataset()
    meta.FileMetaInformationVersion = b"\0\1"
    meta.MediaStorageSOPClassUID = CTImageStorage
    meta.MediaStorageSOPInstanceUID = "2.25.1"
    meta.TransferSyntaxUID = ExplicitVRLittleEndian
    meta.ImplementationClassUID = "2.25.2"
    made = FileDataset("", {}, file_meta=meta, preamble=bytes(range(128)))
    made.is_little_endian, made.is_implicit_VR = True, False
    made.SpecificCharacterSet = "ISO_IR 192"
    made.ImageType = ["ORIGINAL", "PRIMARY", "AXIAL"]
    made.SOPClassUID, made.SOPInstanceUID = CTImageStorage, "2.25.1"
    made.Modality, made.PatientName, made.PatientID = "CT", "Nobody^No One", "0"
    made.add_new(0x00104000, "LT", "kept")
    made.add_new(0x00091001, "UN", b"private!")
    made.add_new(0x00090010, "LO", "A MAKER")
    item = Dataset()
    item.ReferencedSOPClassUID, item.ReferencedSOPInstanceUID = CTImageStorage, "2.25.3"
    made.ReferencedImageSequence = Sequence([item])
    made.SamplesPerPixel = 1 if frames.ndim == 3 else 3
    made.PhotometricInterpretation = photometric or ("MONOCHROME2" if frames.ndim == 3 else "RGB")
    if frames.ndim == 4:
        made.PlanarConfiguration = 0
    if len(frames) > 1:
        made.NumberOfFrames = len(frames)
    made.Rows, made.Columns = frames.shape[1:3]
    made.BitsAllocated = 8 * frames.dtype.itemsize
    made.BitsStored, made.HighBit, made.PixelRepresentation = bits, bits - 1, int(frames.dtype.kind == "i")
    made.add_new(0x00280106, "SS" if frames.dtype.kind == "i" else "US", int(frames.min()))
    made.LossyImageCompression = "00"
    return made


def saved(made, path):
    """Writes a data set with padding behind Pixel Data."""
    made.add_new(0xFFFCFFFC, "OB", bytes(6))
    made.save_as(path, write_like_original=False)
    return path


def native(path, frames, bits, photometric=None, **elements):
    """A native file."""
    made = described(frames, bits, photometric)
    data = frames.tobytes()
    made.PixelData = data + b"\0" * (len(data) % 2)
    made["PixelData"].VR = "OW" if made.BitsAllocated == 16 else "OB"
    for keyword, value in elements.items():
        setattr(made, keyword, value)
    return saved(made, path)


def coded(path, frames, bits, fragments, table=True, syntax=JPEG2000Lossless, **elements):
    """A file with fragments, which are a list of bytes for each frame."""
    made = described(frames, bits)
    flat = [part + b"\0" * (len(part) % 2) for parts in fragments for part in parts]
    made.PixelData = encapsulate(flat, has_bot=False)
    if table:
        lengths = [sum(len(part) + len(part) % 2 + 8 for part in parts) for parts in fragments]
        begins = np.cumsum([0, *lengths[:-1]]).astype("<u4").tobytes()
        made.PixelData = b"\xfe\xff\x00\xe0" + len(begins).to_bytes(4, "little") + begins + made.PixelData[8:]
    made["PixelData"].VR, made["PixelData"].is_undefined_length = "OB", True
    made.file_meta.TransferSyntaxUID = syntax
    for keyword, value in elements.items():
        setattr(made, keyword, value)
    return saved(made, path)
