"""Mails: their form (RFC 5322), and how they are sent."""
import email.message
import email.policy
import email.utils
import hashlib
import re
import smtplib
import ssl
import subprocess

from notify_of.texts import mail_text

ADDRESS = re.compile(r"[A-Za-z0-9_][A-Za-z0-9.!#$%&'*+/=?^_`{|}~-]{0,63}"
                     r"@[A-Za-z0-9](?:[A-Za-z0-9.-]{0,250}[A-Za-z0-9])?")
WAIT = 30  # seconds in which the mail server must answer


class MailError(Exception):
    """Why a mail was not sent."""


class ServerError(MailError):
    """Why no mail can be sent."""


def message(notice, receiver, sender, language, url, now):
    """The mail of a notice. Its Message-ID is the same in each run, so that a mail that came twice is shown once."""
    address, own_language = receiver
    policy = email.policy.SMTP.clone(cte_type="7bit")
    subject, body = mail_text(own_language or language, notice, url)
    found = email.message.EmailMessage(policy=policy)
    found["From"], found["To"], found["Subject"] = sender, address, subject
    found["Date"] = email.utils.formatdate(now)
    identity = hashlib.sha256(f"{notice.key} {notice.member} {sorted(notice.values.items())}".encode()).hexdigest()[:32]
    found["Message-ID"] = f"<{identity}@{sender.rpartition('@')[2]}>"
    found["Auto-Submitted"] = "auto-generated"
    found.set_content(body)
    return found


class Smtp:
    """A mail server, connected at the first mail and again after a failure."""

    def __init__(self, host, port, is_encrypted, login):
        self.host, self.port, self.is_encrypted, self.login, self.server = host, port, is_encrypted, login, None

    def connect(self):
        try:
            server = smtplib.SMTP(self.host, self.port, timeout=WAIT)
            try:
                if self.is_encrypted:
                    server.starttls(context=ssl.create_default_context())
                if self.login:
                    server.login(*self.login)
            except BaseException:
                server.close()
                raise
        except (OSError, smtplib.SMTPException) as error:
            raise ServerError(f"{self.host}:{self.port}: {error}") from None
        return server

    def send(self, mail):
        if self.server is None:
            self.server = self.connect()
        try:
            self.server.send_message(mail)
        except (OSError, smtplib.SMTPException) as error:
            self.close()
            raise MailError(f"{self.host}:{self.port}: {error}") from None

    def close(self):
        server, self.server = self.server, None
        if server is not None:
            try:
                server.quit()
            except (OSError, smtplib.SMTPException):
                server.close()


class Sendmail:
    """A program that takes a mail on its standard input, as sendmail does."""

    def __init__(self, program):
        self.program = program

    def send(self, mail):
        words = [self.program, "-i", "-f", str(mail["From"]), str(mail["To"])]
        data = mail.as_bytes(policy=mail.policy.clone(linesep="\n"))
        try:
            ran = subprocess.run(words, input=data, stdout=subprocess.DEVNULL, stderr=subprocess.PIPE, timeout=WAIT * 4)
        except (OSError, subprocess.TimeoutExpired) as error:
            raise MailError(str(error)) from None
        if ran.returncode:
            said = ran.stderr.decode(errors="replace").strip()[:200]
            raise MailError(f"{self.program}: status {ran.returncode} {said}")

    def close(self):
        """Nothing stays open between two mails."""
