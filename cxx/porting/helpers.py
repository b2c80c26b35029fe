"""Not proved (README.md). Value methods that stand in a class for what C++ has as an operator and the language
doesn't."""

from . import form

LEAST = "(-9223372036854775807 - 1)"
HELPERS = {
    "power_": """long power_(long n_) {
  long p_ = 1;
  if ((n_ & 1) != 0) p_ = 2;
  if ((n_ & 2) != 0) p_ = p_ * 4;
  if ((n_ & 4) != 0) p_ = p_ * 16;
  if ((n_ & 8) != 0) p_ = p_ * 256;
  if ((n_ & 16) != 0) p_ = p_ * 65536;
  if ((n_ & 32) != 0) p_ = p_ * 4294967296;
  return p_;
}""",
    # Rounded down: a shift to the right of a number with sign.
    "down_": """long down_(long n_, long p_) {
  if (n_ >= 0) return n_ / p_;
  return -((-1 - n_) / p_) - 1;
}""",
    # A shift to the right of 64 bits without sign.
    "shifted_": """long shifted_(long n_, long k_) {
  if (k_ == 0) return n_;
  long half_ = n_ / 2;
  if (n_ < 0) half_ = ((n_ & 9223372036854775807) / 2) | 4611686018427387904;
  long p_ = 1;
  long l_ = k_ - 1;
  if ((l_ & 1) != 0) p_ = 2;
  if ((l_ & 2) != 0) p_ = p_ * 4;
  if ((l_ & 4) != 0) p_ = p_ * 16;
  if ((l_ & 8) != 0) p_ = p_ * 256;
  if ((l_ & 16) != 0) p_ = p_ * 65536;
  if ((l_ & 32) != 0) p_ = p_ * 4294967296;
  return half_ / p_;
}""",
    # Quotient and remainder of 64 bits without sign.
    "quotient_": """long quotient_(long n_, long d_) {
  if (d_ < 0) {
    if (n_ >= 0 || n_ < d_) return 0;
    return 1;
  }
  if (n_ >= 0) return n_ / d_;
  long half_ = ((n_ & 9223372036854775807) / 2) | 4611686018427387904;
  long q_ = half_ / d_ * 2;
  long r_ = n_ - q_ * d_;
  if (r_ < 0 || r_ >= d_) return q_ + 1;
  return q_;
}""",
    "remainder_": """long remainder_(long n_, long d_) {
  if (d_ < 0) {
    if (n_ >= 0 || n_ < d_) return n_;
    return n_ - d_;
  }
  if (n_ >= 0) return n_ % d_;
  long half_ = ((n_ & 9223372036854775807) / 2) | 4611686018427387904;
  long r_ = n_ - half_ / d_ * 2 * d_;
  if (r_ < 0 || r_ >= d_) return r_ - d_;
  return r_;
}""",
    "abs_": """long abs_(long n_) {
  if (n_ < 0) return -n_;
  return n_;
}""",
}


def choosing(type_: form.Type) -> tuple[str, str]:
    """The name and text of the helper that gives one of two values."""
    word = type_.name if isinstance(type_, form.Scalar) else type_.cls
    spelled = word + " " if isinstance(type_, form.Scalar) else word + " *"
    name = f"pick_{word}_"
    text = f"{spelled}{name}(bool c_, {spelled}x_, {spelled}y_) {{\n  if (c_) return x_;\n  return y_;\n}}"
    return name, text
