"""Files and records from plain numbers: to the byte as the reference builds them, and what does not fit is named."""

import unittest
from dataclasses import replace
from random import Random
from typing import Optional

import paths  # noqa: F401

import layout
import samples
from layout import File, build_file, build_record
from reserving_desk import Mean, Prior, Refused, Session, file_of, flat_prior, record_of

DOUBLINGS = "must be from -64 to 64 doublings, that is -67,108,864 to 67,108,864 ticks: its 4 bytes cannot hold"


def built(file: File) -> bytes:
    """The reference's numbers through the package's builder, as lists."""
    priors = [Prior(*pair) for pair in zip(file.prior_means, file.prior_variances)]
    return file_of(
        [list(row) for row in file.paid],
        [list(row) for row in file.incurred],
        sigma_squared=list(file.sigma2),
        tau_squared=list(file.tau2),
        phi_priors=priors[:file.last + 1],
        psi_priors=priors[file.last + 1:],
        closeness=file.closeness,
    )


def refusal_number(file: bytes) -> int:
    try:
        Session().open(file)
    except Refused as refused:
        return refused.number
    return 0


class Files(unittest.TestCase):
    def test_as_the_reference_builds_them(self) -> None:
        rng = Random("builders")
        drawn = [samples.drawn_any_file(rng, last) for last in range(1, 16) for _ in range(4)]
        limits = [samples.file_at_limits(last, end) for last in (1, 15) for end in (0, 1)]
        for file in (samples.file_f(), *drawn, *limits):
            self.assertEqual(built(file), build_file(file))

    def test_beyond_the_limits_is_written_and_refused(self) -> None:
        f = samples.file_f()
        beyond = {
            3: samples.file_at_limits(16, 0),
            5: replace(f, closeness=(1 << 32) - 1),
            6: replace(f, sigma2=(0, 1 << 30)),
            7: replace(f, prior_variances=(0, 1, (1 << 64) - 1)),
            8: replace(f, prior_means=(-(1 << 31), (1 << 31) - 1, 0)),
            9: replace(f, paid=((1 << 10, 1 << 11), (0,))),
            10: replace(f, incurred=((1 << 12, 1 << 12), (1 << 12,))),
        }
        for number, file in beyond.items():
            self.assertEqual(built(file), build_file(file))
            self.assertEqual(refusal_number(built(file)), number)
        one_year = File(0, 1, (1 << 30,), (), (0,), (1 << 46,), ((1,),), ((1,),))
        self.assertEqual(refusal_number(built(one_year)), 3)

    def test_what_does_not_fit_is_named(self) -> None:
        f = samples.file_f()
        ticks = "must be from 1 to 65,536 ticks: its 4 bytes cannot hold"
        variance = "must be from 262,144 to 1,099,511,627,776, a standard deviation from 0.00034 to 0.69: its 8 bytes cannot hold"
        prior = "must be from 262,144 to 70,368,744,177,664, a standard deviation from 0.00034 to 5.5, or 0 for no prior: " \
            "its 8 bytes cannot hold"
        amount = "must be from 1 to 17,592,186,044,416: its 8 bytes cannot hold"
        wrong = {
            f"closeness {ticks} 4,294,967,296": replace(f, closeness=1 << 32),
            f"closeness {ticks} -1": replace(f, closeness=-1),
            f"sigma squared of development year 1 {variance} -1": replace(f, sigma2=(1 << 30, -1)),
            f"tau squared of development year 0 {variance} 18,446,744,073,709,551,616": replace(f, tau2=(1 << 64,)),
            f"tau squared of development year 0 {variance} a number of 20,001 bits": replace(f, tau2=(1 << 20_000,)),
            f"prior mean of psi of development year 0 {DOUBLINGS} 2,147,483,648": replace(f, prior_means=(0, 0, 1 << 31)),
            f"prior variance of phi of development year 0 {prior} -5": replace(f, prior_variances=(-5, 1 << 46, 1 << 46)),
            f"paid amount of accident year 1, development year 0 {amount} -7": replace(f, paid=((1 << 10, 1 << 11), (-7,))),
            f"incurred amount of accident year 0, development year 1 {amount} -1": replace(f, incurred=((1, -1), (1,))),
            "last development year J must be from 1 to 15: its 1 byte cannot hold 256": samples.file_at_limits(256, 0),
        }
        for message, file in wrong.items():
            with self.assertRaises(ValueError) as caught:
                built(file)
            self.assertEqual(str(caught.exception), message)


class WithoutPriors(unittest.TestCase):
    def given(self, phi_priors: list[Optional[Prior]], psi_priors: list[Optional[Prior]]) -> bytes:
        f = samples.file_f()
        return file_of(
            f.paid, f.incurred, sigma_squared=f.sigma2, tau_squared=f.tau2, phi_priors=phi_priors, psi_priors=psi_priors, closeness=1,
        )

    def test_a_flat_prior_is_one_of_variance_0(self) -> None:
        self.assertEqual((flat_prior(), flat_prior(5), flat_prior(mean=-7)), (Prior(0, 0), Prior(5, 0), Prior(-7, 0)))

    def test_none_is_a_part_without_a_prior(self) -> None:
        self.assertEqual(self.given([None, None], [None]), self.given([flat_prior(), Prior(0, 0)], [flat_prior(0)]))
        one = self.given([Prior(3, 1 << 46), None], [Prior(-4, 1 << 18)])
        self.assertEqual(one, self.given([Prior(3, 1 << 46), flat_prior()], [Prior(-4, 1 << 18)]))

    def test_the_sweep_starts_at_its_mean(self) -> None:
        """Without priors F settles on the same mean from afar, and its own weights are those of its observations."""
        settled = Mean(phi=(10 << 20, 1 << 20), psi=(-(1 << 20),))
        for means in ((10 << 20, 1 << 20, -(1 << 20)), (0, 0, 0), (1 << 26, -(1 << 26), 1 << 26)):
            with Session() as desk:
                desk.open(self.given([flat_prior(mean) for mean in means[:2]], [flat_prior(means[2])]))
                self.assertEqual(desk.figures().own_weights, (131_072, 65_536, 65_536))
                first = desk.sweep()
                self.assertEqual((first.settled, first.total == 0), (True, means == settled.parts))
                self.assertLessEqual(max(abs(a - b) for a, b in zip(desk.read().parts, settled.parts)), 1)

    def test_a_flat_prior_s_mean_has_limits(self) -> None:
        for mean, number in ((1 << 26, 0), (-(1 << 26), 0), ((1 << 26) + 1, 8), (-(1 << 26) - 1, 8)):
            self.assertEqual(refusal_number(self.given([None, flat_prior(mean)], [None])), number)


class Records(unittest.TestCase):
    def test_as_the_reference_builds_them(self) -> None:
        rng = Random("records")
        for last in range(1, 16):
            parts = tuple(rng.randint(-(1 << 31), (1 << 31) - 1) for _ in range(layout.parts_count(last)))
            self.assertEqual(record_of(Mean(parts[:last + 1], parts[last + 1:])), build_record(parts))

    def test_read_back(self) -> None:
        rng = Random("read back")
        for last in (1, 4, 15):
            desk = Session()
            desk.open(build_file(replace(samples.drawn_file(rng, last), closeness=65_536)))
            while not desk.sweep(100).settled:
                pass
            mean = desk.read()
            self.assertEqual((len(mean.phi), len(mean.psi)), (last + 1, last))
            self.assertTrue(desk.judge(record_of(mean)).passed)
            buffer = bytearray(layout.record_length(last))
            desk.read_into(buffer)
            self.assertEqual(record_of(mean), bytes(buffer))

    def test_what_does_not_fit_is_named(self) -> None:
        with self.assertRaisesRegex(ValueError, f"^psi of development year 0 {DOUBLINGS} 2,147,483,648$"):
            record_of(Mean((0, 0), (1 << 31,)))


if __name__ == "__main__":
    unittest.main()
