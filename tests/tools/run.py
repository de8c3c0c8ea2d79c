#!/usr/bin/env python3
"""Tests of the tools: each wrong case is printed, then one line, 'N cases, M wrong'. Status 1 where one is wrong."""

import sys

import harness
import abaqus_cases
import archive_cases
import collapsed_cases
import command_cases
import counts_cases
import cover_cases
import drawing_cases
import explain_cases
import export_cases
import from_seqgp_cases
import gmsh_cases
import grd_cases
import nastran_cases
import output_cases
import page_cases
import picture_cases
import script_cases
import seqgp_cases
import slip_cases
import thickness_cases


def main():
    counted = harness.Cases()
    for module in (grd_cases, cover_cases, gmsh_cases, abaqus_cases, nastran_cases, collapsed_cases, slip_cases, export_cases,
                   command_cases, counts_cases, output_cases, seqgp_cases, from_seqgp_cases, picture_cases, drawing_cases, page_cases,
                   thickness_cases, explain_cases, archive_cases, script_cases):
        try:
            module.cases(counted)
        # argparse leaves by SystemExit
        except (Exception, SystemExit) as error:
            counted.equal('%s runs to its end' % module.__name__, repr(error), 'no exception')
    return counted.report()


if __name__ == '__main__':
    sys.exit(main())
