"""The conversions: the worked examples M1 to M8, their way back, and what does not convert."""
import unittest

import tapermoss
from tapermoss import Drive, Refused


def words(low, high):
    return low + 65536 * high


class Conversions(unittest.TestCase):
    def test_the_worked_addresses(self):
        examples = [
            (Drive.SHUGART24, 210, words(0o400, 0)),
            (Drive.SHUGART12, 210, words(0o1000, 0)),
            (Drive.SHUGART12, 24209, words(0o144575, 0)),
            (Drive.SHUGART24, 48449, words(0o144775, 0)),
            (Drive.MICROPOLIS35, 69551, words(0o2027, 0o1103)),
            (Drive.FLOPPY, 431, words(0o27, 0o114)),
        ]
        for drive, lbn, pda in examples:
            with self.subTest(drive=drive, lbn=lbn):
                self.assertEqual(tapermoss.lbn_to_pda(drive, lbn), pda)
                self.assertEqual(tapermoss.pda_to_lbn(drive, pda), lbn)
        self.assertEqual(tapermoss.lbn_to_lda(Drive.SHUGART24, 210), words(0o151000, 0o140000))
        self.assertEqual(tapermoss.lda_to_lbn(Drive.MICROPOLIS35, words(0o127400, 0o140417)), 69551)
        self.assertEqual(tapermoss.lbn_to_fileid(Drive.FLOPPY, 431), 57775)
        self.assertEqual(tapermoss.fileid_to_lbn(Drive.FLOPPY, 57775), 431)

    def test_every_block_of_a_floppy_goes_both_ways(self):
        for lbn in range(Drive.FLOPPY.blocks):
            self.assertEqual(tapermoss.pda_to_lbn(Drive.FLOPPY, tapermoss.lbn_to_pda(Drive.FLOPPY, lbn)), lbn)
            self.assertEqual(tapermoss.lda_to_lbn(Drive.FLOPPY, tapermoss.lbn_to_lda(Drive.FLOPPY, lbn)), lbn)

    def test_an_lda_names_its_block_whatever_its_reserved_bits_are(self):
        for drive in Drive:
            for lbn in (0, 1, 210, drive.blocks - 1):
                clean = tapermoss.lbn_to_lda(drive, lbn)
                self.assertEqual(clean % 256, 0)
                for bits in range(256):
                    self.assertEqual(tapermoss.lda_to_lbn(drive, clean + bits), lbn)
            for bits in range(256):
                with self.assertRaises(Refused) as caught:
                    tapermoss.lda_to_lbn(drive, bits)
                self.assertEqual(caught.exception.number, 10)

    def test_what_does_not_convert_is_refused_by_10(self):
        calls = [
            lambda: tapermoss.lbn_to_fileid(Drive.MICROPOLIS35, 57344),
            lambda: tapermoss.lbn_to_pda(Drive.FLOPPY, 432),
            lambda: tapermoss.lda_to_lbn(Drive.SHUGART12, 0),
            lambda: tapermoss.pda_to_lbn(Drive.SHUGART12, 0),
        ]
        for call in calls:
            with self.assertRaises(Refused) as caught:
                call()
            self.assertEqual(caught.exception.number, 10)
            self.assertEqual(str(caught.exception),
                             'refused (10): this number is no block, address or FileID of the drive')

    def test_a_drive_above_3_is_refused_by_1(self):
        with self.assertRaises(Refused) as caught:
            tapermoss.lbn_to_pda(4, 0)
        self.assertEqual(caught.exception.number, 1)

    def test_a_number_that_would_be_cut_off_is_an_error(self):
        for lbn in (-1, 2 ** 32, 2 ** 40):
            with self.assertRaises(OverflowError):
                tapermoss.lbn_to_pda(Drive.FLOPPY, lbn)
