"""The usual headings of a carrier's tables, in English, French and German.

Case, accents, signs and small words as "per", "du" and "je" don't count, so that "Coût par camion (EUR)" is "cout camion".
"""

NAME = "name, nom, bezeichnung"
ORIGIN = (
    "origin, from, from terminal, origin terminal, departure terminal, start, source,"
    "origine, depart, de, provenance, terminal origine, terminal depart, ville depart, agence depart,"
    "von, start, startort, abgang, abgangsort, ausgangsort, herkunft, versandort, beladeort, ladeort, von terminal, abgangsterminal"
)
DESTINATION = (
    "destination, to, to terminal, destination terminal, arrival terminal, end, dest,"
    "arrivee, vers, a, terminal arrivee, terminal destination, ville arrivee, agence arrivee,"
    "nach, ziel, zielort, bestimmungsort, empfangsort, entladeort, nach terminal, zielterminal"
)

# Each table, each of its columns, and the headings by which it is found.
WORDS = {
    "terminals": {
        "name": NAME + ", terminal, terminal name, depot, depot name, hub, site, station, platform, location, city,"
        "agence, plateforme, plate forme, ville, quai,"
        "niederlassung, standort, umschlagplatz, umschlaglager, lager, ort, stadt",
        "hold": "hold, hold time, holding time, handling, handling time, dwell, dwell time, transfer time, minimum hold,"
        "manutention, temps manutention, duree manutention, temps transbordement, duree transbordement, temps traitement, temps quai,"
        "umschlag, umschlagzeit, umschlagszeit, umschlagdauer, umschlagsdauer, haltezeit, standzeit, bearbeitungszeit, handlingzeit, umladezeit",
    },
    "lanes": {
        "origin": ORIGIN,
        "destination": DESTINATION,
        "time": "time, travel time, transit time, transit, driving time, drive time, duration, run time,"
        "duree, temps, temps trajet, duree trajet, temps parcours, duree parcours, temps route, temps conduite, duree route,"
        "fahrzeit, fahrtzeit, fahrdauer, fahrtdauer, dauer, laufzeit, transportzeit, reisezeit, zeit",
        "capacity": "capacity, truck capacity, capacity truck, trailer capacity, vehicle capacity,"
        "capacite, capacite camion, capacite vehicule, charge maximale,"
        "kapazität, lkw kapazität, kapazität lkw, ladekapazität, fassungsvermögen, fahrzeugkapazität",
        "truck_cost": "truck cost, cost truck, price truck, rate truck, truck rate, truck price, trip cost, cost trip,"
        "cout camion, prix camion, tarif camion, cout vehicule, cout trajet,"
        "kosten lkw, lkw kosten, preis lkw, lkw preis, kosten fahrt, fahrtkosten, kosten fahrzeug",
        "unit_cost": "unit cost, cost unit, price unit, unit price, unit rate, cost pallet, pallet cost, price pallet, cost kg,"
        "cout unite, cout unitaire, prix unitaire, prix unite, cout palette, prix palette, cout kg,"
        "kosten einheit, einheitskosten, stückkosten, kosten palette, palettenkosten, preis palette, preis einheit, kosten kg",
    },
    "shipments": {
        "name": NAME + ", shipment, shipment name, shipment id, shipment number, id, number, reference, ref, order, order number, consignment,"
        "envoi, expedition, numero, no, n, numero envoi, no envoi, n envoi, reference envoi, commande, lot,"
        "sendung, sendungsnummer, sendungs nr, sendungsnr, auftrag, auftragsnummer, auftrags nr, nummer, nr, referenz",
        "origin": ORIGIN,
        "destination": DESTINATION,
        "size": "size, quantity, qty, pallets, units, weight, volume, load, number pallets,"
        "taille, quantite, qte, palettes, nombre palettes, nb palettes, poids, unites,"
        "größe, menge, anzahl, paletten, anzahl paletten, gewicht, volumen, stellplätze",
        "release": "release, release time, ready, ready time, ready at, available, available from, earliest departure, earliest, pickup, pick up, pickup time,"
        "pret, prete, pret a, disponible, disponible a partir, disponibilite, mise a disposition, enlevement, heure enlevement, depart plus tot,"
        "bereit, bereit ab, verfügbar, verfügbar ab, bereitstellung, abholung, abholung ab, abholzeit, frühestens, frühester start, ab",
        "due": "due, due time, due by, due at, deadline, deliver by, delivery, delivery by, delivery time, latest arrival, latest,"
        "echeance, livraison, a livrer avant, livrer avant, livraison avant, livraison plus tard, arrivee plus tard, plus tard, date limite, limite, heure livraison,"
        "fällig, fälligkeit, termin, liefertermin, spätestens, lieferung, lieferung bis, anlieferung, anlieferung bis, zustellung, zustellung bis, ankunft bis, frist, bis",
    },
}
OPTIONAL = {("terminals", "hold")}
SMALL_WORDS = frozenset("per of the a at in pro je pour par du de des d la le les l au en an der die das des dem zum im".split())

# The unit of time that a heading may have in brackets or at its end, in seconds.
TIME_UNITS = {
    1: "s, sec, second, seconds, seconde, secondes, sek, sekunde, sekunden",
    60: "m, min, mn, mins, minute, minutes, minuten",
    3600: "h, hr, hrs, hour, hours, heure, heures, std, stunde, stunden",
    86400: "d, day, days, j, jour, jours, tag, tage, tagen",
}
