--  A Finalize that declares an object of its own type never comes to its end: finalizing that object calls Finalize again.
--  No rule of the language forbids this. The limit on steps ends the run:
--     ./adactl run examples/endless.adb --steps 20
with Ada.Finalization; use Ada.Finalization;
with Ada.Text_IO;      use Ada.Text_IO;

procedure Endless is
   type Snake is new Controlled with null record;

   overriding procedure Finalize (X : in out Snake) is
      Tail : Snake;
   begin
      Put_Line ("another bite");
   end Finalize;

   Head : Snake;
begin
   null;
end Endless;
