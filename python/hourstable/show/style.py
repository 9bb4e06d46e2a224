"""The look of a picture, in light and in dark."""

STYLE = """<style>
.paper { fill: #ffffff; }
text { font: 12px system-ui, -apple-system, 'Segoe UI', Roboto, sans-serif; fill: #1f2328; }
.heading { font-size: 15px; font-weight: 600; }
.name { font-weight: 600; }
.quiet { fill: #59636e; }
.grid { stroke: #d8dee4; stroke-width: 1; fill: none; }
.lane { fill: #f6f8fa; stroke: #d8dee4; }
.may { fill: #2da44e; fill-opacity: 0.2; }
.steady { fill: #dfe5ec; stroke: #8c959f; }
.waiting { fill: #fff3c4; stroke: #9a6700; stroke-dasharray: 4 2; }
.term { fill: #eaeef2; stroke: #8c959f; }
.life { fill: #e4e0f6; stroke: #8250df; }
.guard { fill: #b6dcff; stroke: #0969da; }
.bridge { fill: #ffd3a8; stroke: #bc4c00; }
.out { stroke: #59636e; stroke-width: 1.5; stroke-dasharray: 3 3; fill: none; }
.skew { fill: url(#hatch); stroke: #8c959f; }
.stripe { stroke: #8c959f; stroke-width: 1.5; }
.handle { stroke: #8250df; stroke-width: 2; fill: none; }
.served { fill: #1a7f37; }
.alarmed { fill: #cf222e; }
.alarm { stroke: #cf222e; stroke-width: 2; fill: none; }
.warning { fill: #cf222e; }
.denied { stroke: #cf222e; stroke-width: 2.5; fill: none; }
.refused { stroke: #59636e; stroke-width: 2; fill: none; }
.released { fill: #1f2328; }
.done { fill: #59636e; }
@media (prefers-color-scheme: dark) {
.paper { fill: #0d1117; }
text { fill: #e6edf3; }
.quiet { fill: #9198a1; }
.grid { stroke: #262c36; }
.lane { fill: #151b23; stroke: #262c36; }
.may { fill: #3fb950; fill-opacity: 0.25; }
.steady { fill: #262c36; stroke: #656c76; }
.waiting { fill: #4b3a0a; stroke: #d29922; }
.term { fill: #212830; stroke: #656c76; }
.life { fill: #2f2550; stroke: #ab7df8; }
.guard { fill: #14406e; stroke: #4493f8; }
.bridge { fill: #5f3000; stroke: #f0883e; }
.out { stroke: #9198a1; }
.skew { stroke: #656c76; }
.stripe { stroke: #656c76; }
.handle { stroke: #ab7df8; }
.served { fill: #3fb950; }
.alarmed { fill: #f85149; }
.alarm { stroke: #f85149; }
.warning { fill: #f85149; }
.denied { stroke: #f85149; }
.refused { stroke: #9198a1; }
.released { fill: #e6edf3; }
.done { fill: #9198a1; }
}
</style>
<defs><pattern id="hatch" width="6" height="6" patternUnits="userSpaceOnUse">
<path class="stripe" d="M0 6L6 0M-1 1L1 -1M5 7L7 5"/></pattern></defs>
"""
