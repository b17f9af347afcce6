"""The text of a postponed annotation, or that it has none."""
import shapes
from meaning import Refused


def text(x):
    try:
        return shapes.annotation_text(x)
    except shapes.FString:
        raise Refused('f-string in a postponed annotation')
