--  Components as actuals of in out and out parameters: the part is found before the call, and its component takes what the copy holds in the
--  end (RM 6.4.1).
with Ada.Text_IO; use Ada.Text_IO;

procedure Components is
   type R is record
      N : Integer := 1;
      M : Integer := 1;
   end record;

   type Pair is record
      K     : Integer := 4;
      Left  : R;
      Right : R;
   end record;

   V : R;
   P : Pair;
   K : Integer := 3;

   procedure Show (X : in R) is
   begin
      Put_Line (Integer'Image (X.N) & Integer'Image (X.M));
   end Show;

   procedure Add (X : in out Integer) is
   begin
      X := X + 1;
   end Add;

   procedure Set (X : out Integer) is
   begin
      Put_Line (Integer'Image (X));
      X := 7;
   end Set;

   procedure Inner (X : in out Pair) is
   begin
      Add (X.Right.M);
      Add (X.K);
   end Inner;

   procedure Both (A : in out Integer; B : in out Integer) is
   begin
      A := A + 10;
      B := B + 20;
   end Both;

   procedure Mixed (A : in Integer; B : in out Integer; C : in out R; D : in out Integer) is
   begin
      C.N := A;
      C.M := A;
      B := B + 100;
      D := D + 1;
   end Mixed;

   procedure Down (M : in out Integer) is
      L : R;
   begin
      if M > 0 then
         L.N := M - 1;
         Down (L.N);
         M := M + L.N;
      end if;
   end Down;
begin
   Add (V.N);
   Show (V);
   Set (V.M);
   Show (V);
   Inner (P);
   Show (P.Left);
   Show (P.Right);
   Put_Line (Integer'Image (P.K));
   Both (V.N, V.M);
   Show (V);
   Mixed (50, V.N, V, K);
   Show (V);
   Put_Line (Integer'Image (K));
   for I in 1 .. 3 loop
      Add (V.M);
   end loop;
   Show (V);
   V.N := 3;
   Down (V.N);
   Show (V);
end Components;
