"""A call that a client made and waits for: what it says, the client's memory, and how it is answered."""

from __future__ import annotations

import os


class ClientGone(Exception):
    """The client does not wait for this call any more: it was ended, or a signal came."""


class BadAddress(Exception):
    """The client gave an address that it may not read or write (EFAULT)."""


class Call:
    """One call of one thread. Exactly one of `give`, `refuse` and `proceed` ends it."""

    def __init__(self, tid: int, number: int, args: tuple[int, ...]) -> None:
        self.tid, self.number, self.args = tid, number, args

    def read(self, address: int, size: int) -> bytes:
        """Bytes of the client's memory."""
        return self._access(address, size, None)

    def write(self, address: int, data: bytes) -> None:
        self._access(address, len(data), data)

    def _access(self, address: int, size: int, data: bytes | None) -> bytes:
        if not 0 < address < 1 << 47:
            raise BadAddress
        got = b""
        try:
            memory = os.open(f"/proc/{self.tid}/mem", os.O_RDONLY if data is None else os.O_WRONLY)
        except OSError:
            raise ClientGone from None
        try:
            # the thread with this number may be another one by now
            self.check()
            if data is None:
                got = os.pread(memory, size, address)
                whole = len(got) == size
            else:
                whole = os.pwrite(memory, data, address) == size
        except OSError:
            whole = False
        finally:
            os.close(memory)
        self.check()
        if not whole:
            raise BadAddress
        return got

    def text(self, address: int, most: int = 4096) -> bytes:
        """The bytes up to a NUL, page by page, since the next page may not be there."""
        got = b""
        while len(got) < most:
            piece = self.read(address + len(got), 256 - (address + len(got)) % 256)
            if b"\0" in piece:
                return got + piece[: piece.index(b"\0")]
            got += piece
        return got

    def check(self) -> None:
        """Raises ClientGone where the client no longer waits for this call."""
        raise NotImplementedError

    def give(self, value: int) -> None:
        """The call returns this value."""
        raise NotImplementedError

    def refuse(self, error: int) -> None:
        """The call fails with this errno."""
        raise NotImplementedError

    def proceed(self) -> None:
        """The kernel does the call as it was made."""
        raise NotImplementedError

    def give_descriptor(self, descriptor: int, number: int, close_on_exec: bool) -> None:
        """The client gets a descriptor of this process under a number, and the call returns that number."""
        raise NotImplementedError


def signed(word: int, bits: int = 32) -> int:
    """The low bits of a register as a signed number."""
    word &= (1 << bits) - 1
    return word - (1 << bits) if word >> (bits - 1) else word
