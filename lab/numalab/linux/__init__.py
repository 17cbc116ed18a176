"""Beside a real kernel: traces made with the real system calls, and where kernels are known to answer differently. Nothing here is
proved, nor claimed of kernels other than those named."""
