"""Lessons in which something is rejected or cancelled, with the reason of every report, written out by hand.

Below each message stands a line for each of its reports: none; or the rule, its two figures and, for 20 to 26, the
sentence that the teacher's tool says of them; or the refusal.  They were written from document 01, document 02, 2 and the
table of docs/TEACHER.md, before any program was asked.
"""

import tools

from sentences import REASONS
from source import one_lesson

LESSONS = {
    "20: at the away price and through it, quotes and orders, with and without a trade": """
        setup call exempt M 1 K 10 strike 200
        open
            none
        away 200 220
            none
        plain buy 3 220 x 1
            20 220 220: bid 220 is not below the away offer 220
        plain buy 3 219 x 1
            none
        mmlo buy 3 225 x 1
            20 225 220: bid 225 is not below the away offer 220
            30 0 0
        order buy 50 230 x 2
            20 230 220: bid 230 is not below the away offer 220
        dark buy 50 220 x 1
            20 220 220: bid 220 is not below the away offer 220
        plain sell 3 200 x 1
            20 200 200: offer 200 is not above the away bid 200
        mmlo sell 3 150 x 1
            20 150 200: offer 150 is not above the away bid 200
        dark sell 50 199 x 1
            20 199 200: offer 199 is not above the away bid 200
        order sell 50 219 x 1
            none
        plain sell 3 230 x 1
            none
        plain buy 3 225 x 3
            none
            20 225 220: bid 225 is not below the away offer 220
            29 0 0
        order buy 51 205 x 1
            none
        order sell 52 198 x 4
            none
            20 198 200: offer 198 is not above the away bid 200""",
    "21: an MMLO stops at the best of what it passes over, dark or half displayed; 20 comes first": """
        setup call exempt M 1 K 10 strike 200
        open
            none
        dark sell 50 221 x 10
            none
        order sell 51 222 x 10
            none
        mmlo buy 3 222 x 20
            none
            21 222 221: bid 222 is not below 221, the best price at which undisplayed interest works on the other side
        dark sell 52 219 x 1
            none
        mmlo buy 3 221 x 1
            21 221 219: bid 221 is not below 219, the best price at which undisplayed interest works on the other side
        away none 221
            none
        mmlo buy 3 221 x 1
            20 221 221: bid 221 is not below the away offer 221
        away 200 none
            none
        mmrp sell 4 195 x 5
            none
        mmlo buy 3 200 x 1
            21 200 200: bid 200 is not below 200, the best price at which undisplayed interest works on the other side
        close
            none
            31 0 0
            31 0 0
            31 0 0
        away none none
            none
        open
            none
        dark buy 50 200 x 5
            none
        order buy 51 199 x 1
            none
        mmlo sell 3 199 x 2
            none
            21 199 200: offer 199 is not above 200, the best price at which undisplayed interest works on the other side
        mmlo sell 3 200 x 2
            21 200 200: offer 200 is not above 200, the best price at which undisplayed interest works on the other side""",
    "22: shown more than K steps from the limit": """
        setup call exempt M 1 K 3 strike 200
        open
            none
        away none 100
            none
        order sell 50 99 x 1
            none
        mmalo buy 3 101 x 1
            none
        mmalo buy 3 102 x 1
            22 4 3: the display would stand 4 steps from the limit, more than K, which is 3
            30 0 0
        mmrp buy 3 103 x 2
            none
            22 4 3: the display would stand 4 steps from the limit, more than K, which is 3""",
    "22 of a sell, with steps of 5 cents": """
        setup put exempt M 5 K 2 strike 200
        open
            none
        away 200 none
            none
        mmrp sell 3 195 x 1
            none
        mmrp sell 4 190 x 1
            22 3 2: the display would stand 3 steps from the limit, more than K, which is 2
        order buy 50 205 x 2
            none
            none
        mmalo sell 4 190 x 1
            22 4 2: the display would stand 4 steps from the limit, more than K, which is 2""",
    "22 where K is 0": """
        setup call exempt M 5 K 0 strike 200
        open
            none
        away none 100
            none
        mmrp buy 3 100 x 1
            22 1 0: the display would stand 1 step from the limit, more than K, which is 0
        mmrp buy 3 95 x 1
            none""",
    "22 across three dollars, where a step is 1 cent below and 5 above": """
        setup call exempt M 1 K 3 strike 200
        open
            none
        away none 300
            none
        mmrp buy 3 310 x 1
            none
        mmrp buy 4 315 x 1
            22 4 3: the display would stand 4 steps from the limit, more than K, which is 3
        away 300 none
            none
            none
        mmalo sell 4 297 x 1
            22 6 3: the display would stand 6 steps from the limit, more than K, which is 3
        mmalo sell 4 300 x 1
            none""",
    "23: no legal price to show; it comes before 22": """
        setup call exempt M 5 K 0 strike 200
        open
            none
        away 100000 5
            none
        mmrp buy 3 5 x 1
            23 0 5: the display would be 0, below the lowest legal price 5
        mmalo buy 3 50 x 1
            23 0 5: the display would be 0, below the lowest legal price 5
        mmrp sell 3 100000 x 1
            23 100010 100000: the display would be 100010, above the highest legal price 100000
        mmalo sell 3 99990 x 1
            23 100010 100000: the display would be 100010, above the highest legal price 100000""",
    "23 with steps of 1 and 5 cents": """
        setup call exempt M 1 K 0 strike 200
        open
            none
        away 100000 1
            none
        mmalo buy 3 1 x 1
            23 0 1: the display would be 0, below the lowest legal price 1
        mmrp sell 3 100000 x 1
            23 100005 100000: the display would be 100005, above the highest legal price 100000""",
    "24 of a bid by the away offer, to a dollar and above": """
        setup call exempt M 1 K 10 strike 200
        open
            none
        away none 100
            none
        plain buy 3 199 x 1
            20 199 100: bid 199 is not below the away offer 100
        mmalo buy 3 200 x 1
            24 200 200: bid 200 is not below 200, a dollar above NBO
        plain buy 3 400 x 1
            24 400 200: bid 400 is not below 200, a dollar above NBO
        away none 200
            none
        plain buy 3 400 x 1
            24 400 200: twice what the bid is above NBO comes to 400, not less than NBO itself, 200
        away none 101
            none
        plain buy 3 151 x 1
            20 151 101: bid 151 is not below the away offer 101
        plain buy 3 152 x 1
            24 102 101: twice what the bid is above NBO comes to 102, not less than NBO itself, 101
        plain buy 3 202 x 1
            24 202 101: twice what the bid is above NBO comes to 202, not less than NBO itself, 101
        away none 1
            none
        plain buy 3 202 x 1
            24 202 101: bid 202 is not below 101, a dollar above NBO
        away none 131071
            refused 3
        plain buy 3 202 x 1
            24 202 101: bid 202 is not below 101, a dollar above NBO""",
    "24 of a bid by what sells show: dark ones nothing, a sliding one its display, one's own counts": """
        setup call exempt M 5 K 10 strike 200
        open
            none
        away 80 150
            none
        away 80 7
            refused 3
        order buy 52 70 x 1
            none
        dark sell 50 90 x 1
            none
        plain buy 3 300 x 1
            24 300 150: twice what the bid is above NBO comes to 300, not less than NBO itself, 150
        plain sell 3 100 x 1
            none
        plain buy 3 400 x 1
            24 400 200: bid 400 is not below 200, a dollar above NBO
        withdraw 3 sell
            28 0 0
        plain buy 3 300 x 1
            24 300 150: twice what the bid is above NBO comes to 300, not less than NBO itself, 150
        away 100 none
            none
        mmrp sell 4 100 x 1
            none
        plain buy 3 210 x 1
            24 210 105: twice what the bid is above NBO comes to 210, not less than NBO itself, 105
        order sell 51 200 x 1
            none
        away 90 none
            none
            none
        plain buy 3 210 x 1
            24 210 200: bid 210 is not below 200, a dollar above NBO
        plain buy 3 400 x 1
            24 400 200: bid 400 is not below 200, a dollar above NBO""",
    "24 of a bid by the book that it finds, not by the one that it leaves": """
        setup call exempt M 1 K 20 strike 200
        open
            none
        plain buy 3 100 x 1
            none
        mmalo sell 4 90 x 1
            none
        plain buy 3 202 x 1
            24 202 101: twice what the bid is above NBO comes to 202, not less than NBO itself, 101
            30 0 0
            none
        plain buy 3 202 x 1
            24 202 190: bid 202 is not below 190, a dollar above NBO""",
    "24 of an offer; no limit with NBB to a dollar": """
        setup call exempt M 1 K 10 strike 200
        open
            none
        away 101 none
            none
        plain sell 3 51 x 1
            20 51 101: offer 51 is not above the away bid 101
        plain sell 3 50 x 1
            24 102 101: twice what the offer is below NBB comes to 102, not less than NBB itself, 101
        away 101 40
            none
        plain sell 3 50 x 1
            24 102 101: twice what the offer is below NBB comes to 102, not less than NBB itself, 101
        away 100 none
            none
        plain sell 3 1 x 1
            20 1 100: offer 1 is not above the away bid 100
        order buy 50 300 x 1
            none
        mmalo sell 3 150 x 1
            24 300 300: twice what the offer is below NBB comes to 300, not less than NBB itself, 300""",
    "25: it comes before 24, and takes both quotes": """
        setup call tested M 1 K 10 strike 200
        open
            none
        underlying 150
            none
        plain buy 3 149 x 1
            none
        plain sell 3 160 x 1
            none
        mmrp buy 3 150 x 1
            25 150 150: bid 150 is not below the underlying 150
            30 0 0
            30 0 0
        plain buy 3 100 x 1
            refused 6
        away none 10
            none
        plain buy 4 300 x 1
            25 300 150: bid 300 is not below the underlying 150""",
    "26; and the reasons that compare no prices": """
        setup put tested M 1 K 10 strike 200
        open
            none
        plain buy 3 199 x 1
            none
        plain buy 3 198 x 1
            27 0 0
            none
        plain buy 3 200 x 1
            26 200 200: bid 200 is not below the strike 200
            30 0 0
        mmlo buy 4 250 x 1
            26 250 200: bid 250 is not below the strike 200
        order buy 50 250 x 1
            none
        cancel 50 #5
            28 0 0
        order buy 50 250 x 1
            none
        close
            none
            31 0 0
        bytes ff
            refused 1""",
    "a setup that is refused": """
        setup call exempt M 10 K 10 strike 200
            refused 1""",
}


def read_lesson(text):
    """(bytes, lines of the view `why`, what is said in brackets of each report, or "") of a lesson above."""
    words, whys, said, number = [], [], [], -1
    for line in text.strip("\n").split("\n"):
        if not line.startswith(" " * 12):
            words.append(line.strip())
            number, place = number + 1, 0
            continue
        reason, _, sentence = line.strip().partition(": ")
        whys.append("%d %s" % (number, reason) if reason.startswith("refused") else "%d %d %s" % (number, place, reason))
        said.append(REASONS[int(reason[:2])] if reason.endswith(" 0 0") else sentence)      # 27 to 31 have words of their own
        place += 1
    return bytes(one_lesson("\n".join(words).encode(), "a lesson").data), whys, said
