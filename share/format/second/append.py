"""Who may append to a note of the second form: who shows a server, without telling it the key, that he has the link."""
from share.format.second.keys import identity_of_public
from share.format.second.signature import is_signed

CHALLENGE_BYTES = 32


def challenged(note: bytes, challenge: bytes, origin: str) -> bytes:
    """What is signed for a server of this origin, as browsers spell it, that chose 32 random bytes."""
    if len(challenge) != CHALLENGE_BYTES:
        raise ValueError(f"a challenge has {CHALLENGE_BYTES} bytes")
    return b"vialshoal 2 append" + note + challenge + origin.encode()


def may_append(note: bytes, public: bytes, challenge: bytes, origin: str, proof: bytes) -> bool:
    """Whether a proof shows a server that somebody has the link of a note, by the public key that its opening names."""
    return identity_of_public(public) == note and is_signed(challenged(note, challenge, origin), proof, public)
