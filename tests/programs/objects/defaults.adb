--  Components with defaults: each takes its own before the object's Initialize is called, and an object without one
--  comes to life behind them (RM 3.8, 7.6).
with Ada.Finalization; use Ada.Finalization;
with Ada.Text_IO;      use Ada.Text_IO;

procedure Defaults is
   type A is new Controlled with record
      N : Integer := 4;
      B : Boolean;
      C : Boolean := True;
      M : Integer := 7;
   end record;

   type D is new Limited_Controlled with record
      N : Integer := 2;
   end record;

   overriding procedure Initialize (X : in out A);
   overriding procedure Finalize (X : in out A);

   procedure Initialize (X : in out A) is
   begin
      Put_Line ("i" & Integer'Image (X.N) & Boolean'Image (X.B) & Boolean'Image (X.C) & Integer'Image (X.M));
      X.N := 5;
   end Initialize;

   procedure Finalize (X : in out A) is
   begin
      Put_Line ("f" & Integer'Image (X.N));
   end Finalize;

   V : A;
   W : D;
begin
   Put_Line (Integer'Image (V.M + W.N));
end Defaults;
