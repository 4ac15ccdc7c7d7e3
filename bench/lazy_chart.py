"""A picture of bench/lazy's times, as SVG: for each workload a bar for each system, as long as how many times it takes the program's time."""
import math

WIDE, LABEL, BAR, GAP, LEFT, RIGHT = 860, 190, 13, 22, 20, 70
COLORS = {
    "lazyview": "#1b6ca8",
    "sqlite3 plain": "#d9822b", "sqlite3 triggers": "#e3a565", "sqlite3 noted": "#edc8a0", "sqlite3 renewed": "#f5dfc6",
    "postgresql plain": "#3f7d4e", "postgresql triggers": "#6fa57c", "postgresql noted": "#9fc7a8", "postgresql renewed": "#b4d4bb",
    "postgresql refresh": "#c9e2cf",
}


def chart(times):
    """The picture of the seconds of each workload and system."""
    ratios = {work: {name: seconds / found["lazyview"] for name, seconds in found.items()} for work, found in times.items()}
    every = [it for found in ratios.values() for it in found.values()] or [1]
    low, high = math.floor(math.log10(min(every))), math.ceil(math.log10(max(every + [10])))
    begin, end = LEFT + LABEL, WIDE - RIGHT
    place = lambda ratio: begin + (math.log10(ratio) - low) / (high - low) * (end - begin)
    parts, y = [], 58
    for work, found in ratios.items():
        parts.append(text(LEFT, y, work, "bold"))
        y += 8
        for name, ratio in sorted(found.items(), key=lambda it: list(COLORS).index(it[0])):
            parts.append(text(LEFT + LABEL - 8, y + BAR - 3, name, anchor="end"))
            wide = max(place(ratio) - begin, 1)
            parts.append('<rect x="%.1f" y="%d" width="%.1f" height="%d" fill="%s"/>' % (begin, y, wide, BAR - 2, COLORS[name]))
            parts.append(text(place(ratio) + 5, y + BAR - 3, "%.2g" % ratio if ratio < 10 else "%.0f" % ratio))
            y += BAR
        y += GAP
    lines = [axis(place(10.0**power), y - GAP, power) for power in range(low, high + 1)]
    title = text(LEFT, 20, "Time for changes and queries, as a multiple of lazyview's (shorter is faster; each step is ten times)", "bold")
    head = '<svg xmlns="http://www.w3.org/2000/svg" width="%d" height="%d" font-family="sans-serif" font-size="11">' % (WIDE, y)
    return "\n".join([head, '<rect width="100%" height="100%" fill="white"/>', title, *lines, *parts, "</svg>"]) + "\n"


def text(x, y, words, weight="normal", anchor="start"):
    return '<text x="%.1f" y="%.1f" font-weight="%s" text-anchor="%s">%s</text>' % (x, y, weight, anchor, words)


def axis(x, bottom, power):
    """A line of the scale, with its number above."""
    color = "#444" if power == 0 else "#ddd"
    return '<path d="M%.1f 44V%d" stroke="%s"/>' % (x, bottom, color) + text(x, 40, "%g" % 10.0**power, anchor="middle")
