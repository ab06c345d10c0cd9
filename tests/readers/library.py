"""libheif's library itself, asked for the planes of a picture.

Its programs turn a picture into one whose planes have one depth, which not every version can do where colour and alpha
differ. The planes are there all the same.
"""

import ctypes

import programs

# Of libheif's enums: the planes red, green and blue, each of full size.
RGB, PLANES_444 = 1, 3
COLOUR, ALPHA = (3, 4, 5), 6


class _Error(ctypes.Structure):
    _fields_ = [("code", ctypes.c_int), ("subcode", ctypes.c_int), ("message", ctypes.c_char_p)]


def _declared(library):
    """The library with the types of the functions that are called here."""
    pointer, number, text = ctypes.c_void_p, ctypes.c_int, ctypes.c_char_p
    to_pointer, to_number = ctypes.POINTER(pointer), ctypes.POINTER(number)
    for name, result, arguments in (
        ("get_version", text, []),
        ("context_alloc", pointer, []),
        ("context_free", None, [pointer]),
        ("context_read_from_file", _Error, [pointer, text, pointer]),
        ("context_get_primary_image_handle", _Error, [pointer, to_pointer]),
        ("image_handle_release", None, [pointer]),
        ("decode_image", _Error, [pointer, to_pointer, number, number, pointer]),
        ("image_release", None, [pointer]),
        ("image_get_width", number, [pointer, number]),
        ("image_get_height", number, [pointer, number]),
        ("image_get_bits_per_pixel_range", number, [pointer, number]),
        ("image_get_plane_readonly", pointer, [pointer, number, to_number]),
    ):
        function = getattr(library, f"heif_{name}")
        function.restype, function.argtypes = result, arguments
    return library


def _refuse_on(error):
    if error.code != 0:
        raise programs.Refused((error.message or b"").decode("utf-8", "replace"))


class Library:
    """libheif's library, which Debian's programs stand on."""

    name = "libheif"
    gives_alpha = True
    gives_parts = halves_chroma = makes_one_depth = False

    def __init__(self):
        self.functions = _declared(ctypes.CDLL("libheif.so.1"))
        self.libheif = self.functions.heif_get_version().decode()

    def version(self):
        return self.libheif

    def read(self, file, _room):
        """Decodes the primary picture."""
        planes = self.planes(file)
        return programs.Seen(_picture(planes, COLOUR), _picture(planes, (ALPHA,)) if ALPHA in planes else None)

    def forgets_limits(self):
        """Whether this version can be told to read files of any size."""
        return hasattr(self.functions, "heif_get_disabled_security_limits")

    def planes(self, file, without_limits=False):
        """Decodes the primary picture. Of each plane that it has, by its channel, the depth, and the rows as bytes."""
        context, handle, image = self.functions.heif_context_alloc(), ctypes.c_void_p(), ctypes.c_void_p()
        try:
            if without_limits:
                _refuse_on(self._forget_limits(context))
            _refuse_on(self.functions.heif_context_read_from_file(context, str(file).encode(), None))
            _refuse_on(self.functions.heif_context_get_primary_image_handle(context, ctypes.byref(handle)))
            _refuse_on(self.functions.heif_decode_image(handle, ctypes.byref(image), RGB, PLANES_444, None))
            planes = {channel: self._plane(image, channel) for channel in (*COLOUR, ALPHA)}
        finally:
            self.functions.heif_image_release(image)
            self.functions.heif_image_handle_release(handle)
            self.functions.heif_context_free(context)
        if any(planes[channel] is None for channel in COLOUR):
            raise programs.Refused("it gives no planes of colour")
        return {channel: plane for channel, plane in planes.items() if plane is not None}

    def _forget_limits(self, context):
        none, forget = self.functions.heif_get_disabled_security_limits, self.functions.heif_context_set_security_limits
        none.restype, forget.restype, forget.argtypes = ctypes.c_void_p, _Error, [ctypes.c_void_p] * 2
        return forget(context, none())

    def _plane(self, image, channel):
        stride = ctypes.c_int()
        data = self.functions.heif_image_get_plane_readonly(image, channel, ctypes.byref(stride))
        if not data:
            return None
        width = self.functions.heif_image_get_width(image, channel)
        height = self.functions.heif_image_get_height(image, channel)
        depth = self.functions.heif_image_get_bits_per_pixel_range(image, channel)
        of_row = width * ctypes.sizeof(_value_of(depth))
        return depth, [ctypes.string_at(data + y * stride.value, of_row) for y in range(height)]


def _value_of(depth):
    return ctypes.c_uint8 if depth <= 8 else ctypes.c_uint16


def _picture(planes, channels):
    """A picture of these planes."""
    depth, (row, *_) = planes[channels[0]]
    values = _value_of(depth) * (len(row) // ctypes.sizeof(_value_of(depth)))
    return programs.made([[list(values.from_buffer_copy(row)) for row in planes[channel][1]] for channel in channels], depth)
