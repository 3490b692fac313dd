"""image_tool once more, in plain Python: settings over NVS, ZMS and FCB on simulated flash."""
