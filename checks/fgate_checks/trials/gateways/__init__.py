"""Cases of the gateway on links of this machine."""
