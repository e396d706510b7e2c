"""DNS zone files, names and RDATA in presentation format, by a proved C library.

>>> zone = b"$TTL 1h\\n@ MX 10 mail\\nmail A 192.0.2.1\\nbad A 192.0.2.256\\n"
>>> wrong = []
>>> for record in records(zone, origin="example.", on_error=wrong.append):
...     print(record)
example. 3600 IN MX 10 mail.example.
mail.example. 3600 IN A 192.0.2.1
>>> print(wrong[0])
4:7: A: address: expected IPv4 address
"""
from ._library import VERSION as __version__
from ._parts import Part, parts, read_part
from ._records import Record, Token, read_zone, records, tokens
from ._values import (Error, Name, canonical_data, format_class, format_data, format_string, format_type,
                      library_version, parse_class, parse_data, parse_name, parse_string, parse_ttl, parse_type,
                      text_data)

__all__ = ["Error", "Name", "Part", "Record", "Token", "__version__", "canonical_data", "format_class", "format_data",
           "format_string", "format_type", "library_version", "parse_class", "parse_data", "parse_name", "parse_string",
           "parse_ttl", "parse_type", "parts", "read_part", "read_zone", "records", "text_data", "tokens"]

for _item in (Error, Name, Part, Record, Token, canonical_data, format_class, format_data, format_string, format_type,
              library_version, parse_class, parse_data, parse_name, parse_string, parse_ttl, parse_type, parts,
              read_part, read_zone, records, text_data, tokens):
    # (so that pickles and tracebacks name this module)
    _item.__module__ = __name__
