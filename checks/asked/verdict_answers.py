"""What the Python package answers of logins and hosts, for asked/answers.py."""
import dataclasses
import ipaddress

from .linked import data_of, datas_of, word


def outcome(call, *given):
    """What a call gives, or how it fails."""
    try:
        return call(*given)
    except Exception as error:  # pylint: disable=broad-exception-caught
        return type(error), str(error)


class VerdictAnswers:
    """The answers about verdicts, each as the words after 0, and as Refused where it is a refusal."""

    def texts(self, word_of):
        """The texts of a word: `?` is one that could not be read."""
        return [] if word_of == "none" else [self.rafendilo.UNREADABLE if it == "?" else data_of(it) for it in word_of.split(",")]

    def signed_of(self, session, host_key, signature, how, bound, flags):
        of = self.rafendilo
        if how == "1":
            return of.SignedRequest(session_id=data_of(session), host_key=data_of(host_key) if bound == "1" else None, signature=data_of(signature))
        return {"2": of.SignedByTransport(flags=None), "3": of.SignedByTransport(flags=int(flags)), "4": of.SignedBySshd()}[how]

    def login_of(self, user, algorithm, blob, *given):
        """What log_in is given, but for who has seen the signature."""
        keys, by, principals, command, files, source, bits, touch, verification, client, host, second = given
        of, address = self.rafendilo, data_of(client)
        trusted = of.Trusted(
            authorized_keys=self.texts(keys), authorities=self.digests(by), principals=of.IN_CERTIFICATE if source == "1" else self.texts(principals),
            command_keys=self.texts(command), revoked=datas_of(files), least_rsa_bits=int(bits), requires_touch=touch == "1",
            requires_verification=verification == "1",
        )  # fmt: skip
        known = ipaddress.ip_address(address) if len(address) in (4, 16) else None
        place = of.Place(client=known, unix_timestamp=int(second), host=data_of(host))
        return of.Offer(data_of(user), data_of(algorithm), data_of(blob)), trusted, place

    def granted(self, given, verifier):
        """What log_in gives of the words of `log-in`."""
        offer, trusted, place = self.login_of(*given[:3], *given[9:])
        return self.rafendilo.log_in(offer, self.signed_of(*given[3:9]), trusted, place, verifier)

    def asking(self, questions, answer=None):
        """A verifier that writes down what it is asked, and gives that answer."""

        def verifier(question):
            questions.append(question)
            return self.rafendilo.is_signature(question) if answer is None else answer

        return verifier

    def log_in(self, *given):
        questions = []
        try:
            of = self.granted(given, self.asking(questions))
        except self.rafendilo.Refused as refused:
            return [str(it) for it in (int(refused.status), len(questions), int(refused.source or 0), refused.text, refused.line)]
        command = b"" if of.shown_command is None else of.shown_command.encode()
        first, last = of.expires or [self.rafendilo.FOREVER] * 2
        parts = [command, of.key_id.encode(), self.places(of.permit_open), self.places(of.permit_listen), b"".join(map(self.rafendilo.string, of.environment))]
        front = ["0", str(len(questions)), *map(str, (int(of.source), of.text, of.line))]
        numbers = map(str, (of.serial, first, last))
        return [*front, *map(word, parts), *numbers, word(of.authority), word(of.key), str(int(of.permits)), str(of.tunnel or 0)]

    def log_in_questions(self, *given):
        questions = []
        try:
            self.granted(given, self.asking(questions, True))
            status = 0
        except self.rafendilo.Refused as refused:
            status = int(refused.status)
        told = [(str(int(it.algorithm)), *map(word, (it.key, it.message, it.signature))) for it in questions]
        return [str(status), *(part for it in told for part in it)]

    def may_offer(self, *given):
        return self.counted(self.rafendilo.may_offer, *self.login_of(*given))

    def forwards(self, to, port, *given):
        of = self.granted(given, self.rafendilo.is_signature)
        return ["0", *(str(int(may(data_of(to), int(port)))) for may in (of.may_open, of.may_listen))]

    def runs(self, asked, is_command, *given):
        found = self.granted(given, self.rafendilo.is_signature).runs(data_of(asked).decode() if is_command == "1" else None)
        return ["3"] if found is None else ["0", word(found.encode())]

    def places(self, found):
        """The hosts and ports as the library lays them out."""
        pairs = [it for host, port in found for it in (host, b"" if port is None else port.to_bytes(2, "big"))]
        return b"".join(map(self.rafendilo.string, pairs))

    def host_of(self, texts, host, files, port, bits, second=None):
        return self.rafendilo.HostLogin(
            known_hosts=datas_of(texts), host=data_of(host), port=int(port), revoked=datas_of(files), unix_timestamp=second, least_rsa_bits=int(bits)
        )  # fmt: skip

    def by_both(self, call, login, shown):
        """What is said by the texts, which is said by those that are held too."""
        held = dataclasses.replace(login, known_hosts=self.rafendilo.HeldHosts(login.known_hosts))
        one, other = outcome(call, login, shown), outcome(call, held, shown)
        assert one == other, (one, other)
        return call(login, shown)

    def host_key(self, texts, host, key, files, port, bits):
        self.by_both(self.rafendilo.check_host_key, self.host_of(texts, host, files, port, bits), data_of(key))
        return ["0"]

    def host_certificate(self, texts, host, data, files, port, bits, second):
        login = self.host_of(texts, host, files, port, bits, int(second))
        return ["0", str(self.by_both(self.rafendilo.check_host_certificate, login, data_of(data)).value)]

    def unreadable_line(self, text, host, port):
        found = self.rafendilo.unreadable_host_line(data_of(text), data_of(host), int(port))
        return ["3"] if found is None else ["0", str(found)]

    def other_key_line(self, line):
        # 12 is RAF_LABEL
        return ["0" if self.rafendilo.is_later_key_line(data_of(line)) else "12"]

    def later_kind(self, data):
        return ["0" if self.rafendilo.names_later_kind(data_of(data)) else "12"]

    def authority(self, found):
        # 61 is RAF_LATER_KEY, and 3 RAF_END
        return ["0", word(found.keys[0])] if found.keys else ["61" if found.later_lines else "3"]

    def line_authority(self, line):
        return self.authority(self.rafendilo.authorities(data_of(line)))

    def user_authority(self, line, user):
        return self.authority(self.rafendilo.user_authorities(data_of(line), data_of(user)))

    def for_key(self, line, key):
        # 3 is RAF_END
        return ["0" if self.rafendilo.line_may_name_key(data_of(line), data_of(key)) else "3"]

    def for_certificate(self, line, data):
        return ["0" if self.rafendilo.line_may_name_authority(data_of(line), data_of(data)) else "3"]

    def may_verify(self, key):
        # 59 is RAF_KEY_NOT_ACCEPTED
        return ["0" if self.rafendilo.may_verify(data_of(key)) else "59"]

    def safe_mode(self, *numbers):
        # 62 is RAF_UNSAFE_MODE
        return ["0" if self.rafendilo.is_safe_mode(*map(int, numbers)) else "62"]

    def unrevoked_key(self, files, key):
        self.rafendilo.check_unrevoked_key(datas_of(files), data_of(key))
        return ["0"]

    def unrevoked_certificate(self, files, data):
        self.rafendilo.check_unrevoked_certificate(datas_of(files), data_of(data))
        return ["0"]
