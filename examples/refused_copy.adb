--  A pair of seats is copied seat by seat, but there are three seats alone. Where the second Adjust of a copy raises, the seat that was taken is
--  given back, the copy never was an object, and Program_Error is raised (RM 7.6.1).
with Ada.Finalization; use Ada.Finalization;
with Ada.Text_IO;      use Ada.Text_IO;

procedure Refused_Copy is
   Full  : exception;
   Taken : Integer := 0;

   type Seat is new Controlled with null record;

   overriding procedure Initialize (X : in out Seat);
   overriding procedure Adjust (X : in out Seat);
   overriding procedure Finalize (X : in out Seat);

   type Pair is record
      First  : Seat;
      Second : Seat;
   end record;

   procedure Take is
   begin
      if Taken = 3 then
         Put_Line ("no seat left");
         raise Full;
      end if;
      Taken := Taken + 1;
      Put_Line ("taken" & Integer'Image (Taken));
   end Take;

   procedure Initialize (X : in out Seat) is
   begin
      Take;
   end Initialize;

   procedure Adjust (X : in out Seat) is
   begin
      Take;
   end Adjust;

   procedure Finalize (X : in out Seat) is
   begin
      Taken := Taken - 1;
      Put_Line ("left" & Integer'Image (Taken));
   end Finalize;

   procedure Copy_Once (X : in Pair) is
      Y : Pair := X;
   begin
      Put_Line ("a copy");
   end Copy_Once;

   procedure Try is
      Ours : Pair;
   begin
      Copy_Once (Ours);
   end Try;
begin
   Try;
exception
   when Program_Error =>
      Put_Line ("no copy");
end Refused_Copy;
