from nfs4tools.client import *
