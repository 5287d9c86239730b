#!/usr/bin/env python3
"""Writes 200 lines of a log whose texts try to break out of a page, of JSON and of attributes.

usage: hostile_log.py >LOG

Two lines, of the actions `a` and `b`, have one `process.name`. Each line has such a text as a value, as a name, in a list and in its
host, and names that stand twice and long numbers. Some have texts of 60,000 characters, and two a list of 150,000 numbers. The log
is the same each time.
"""
import json

RUN = "window.ran=1"
TEXTS = [
    f"<script>{RUN}</script>", f"</script><script>{RUN}</script>", f"<!--<script>{RUN}//", f"--><img src=x onerror={RUN}>",
    f"\"><svg onload={RUN}>", f"' onmouseover='{RUN}", f"\" autofocus onfocus=\"{RUN}", f"javascript:{RUN}",
    f"data:text/html,<script>parent.{RUN}</script>", f"</style><script>{RUN}</script>", f"</title></head><body onload={RUN}>",
    f"</textarea><img src=x onerror={RUN}>", f"</bdi></pre><iframe srcdoc='<script>parent.{RUN}</script>'>",
    "<base href=//evil.example/>", "<meta http-equiv=refresh content='0;url=//evil.example'>",
    "<link rel=stylesheet href=//evil.example/x.css>", "<img src=//evil.example/x.png>", "<style>*{display:none}</style>",
    "<math><a xlink:href=javascript:window.ran=1>", f"<template><script>{RUN}</script></template>", "]]>", "<![CDATA[", "<?php", "<%= x %>",
    "&lt;script&gt;&#60;script&#62;&amp;&quot;", "%3Cscript%3E", "\\u003cscript\\u003e", "{{data}} {{script}} {{style}} {{policy}}",
    f"${{{RUN}}}", f"`{RUN}`", f"';{RUN};'", f"\";{RUN};\"", f"\\\";{RUN};//", f"\\\\\";{RUN};//", "\\", "\\\\", "\"", "'", "",
    f"\u2028{RUN}//\u2029", f"\n{RUN}\n", f"\r\n{RUN}", "\t\t", "\x00\x01\x02", "\x1b[31mred\x1b[2J", "\x7f\x80\x9b", "\u202egnp.exe\u202c",
    "\u2066\u2067\u2068inside\u2069", "\u200b\u200c\u200d\u2060", "\ufeff", "\u00a0\u2003\u3000", "\u00ad", "\u061c\u200e\u200f",
    "\U000e0041\U000e007f", "\ue000\uffff\U0010ffff", "e" + "\u0301" * 300, "\u05d0\u05d1\u05d2 <b> \u0627\u0628", "\U0001f600\U0001f468\u200d\U0001f469",
    "{\"a\":", "}],[{", "\"}]}</script>", "],\"lanes\":[", "{\"@timestamp\":0}", "null", "true", "NaN", "1e999", "__proto__", "constructor",
    "toString", "hasOwnProperty", "length", "#match=2", "?a=b&c=<d>", "file:///etc/passwd", "\\\\host\\share\\<x>",
    "x" * 60000, "<b>" * 20000, "\u202e" * 5000, "\"" * 20000, "\\" * 20000, "</script>" * 3000, "&" * 30000, "a\u202e" * 30000,
]


def line(time: int, number: int, action: str) -> str:
    text, other, third = (json.dumps(TEXTS[(number * step + shift) % len(TEXTS)], ensure_ascii=bool(number % 2))
                          for step, shift in ((1, 0), (7, 3), (11, 5)))
    many = "[" + "1," * 150000 * (number == 99) + "1]"
    key = json.dumps(f"{number} " + json.loads(text)[:200], ensure_ascii=False)
    return (f'{{"@timestamp":{time},"event":{{"category":"process","action":"{action}"}},"process":{{"name":{key}}},{text}:{other},'
            f'"host":{{"id":{third}}},"list":[{text},[],{{}},[{{{other}:{third}}}],{text}],"twice":1,"twice":{other},'
            f'"numbers":[9223372036854775807,-0,1.0,1E5,0.1e-7,123456789012345678901234567890],"many":{many},"deep":{"[" * 60}{third}{"]" * 60}}}')


for number in range(100):
    for at, action in enumerate("ab"):
        print(line(1741075200000 + number * 1000 + at * number, number, action))
