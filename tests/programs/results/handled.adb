--  An exception in the middle of actuals: the records that functions gave before it are dropped, and later calls are right. A
--  function that reaches its end raises Program_Error (RM 6.4.1, 6.5, 11.4).
with Ada.Text_IO; use Ada.Text_IO;

procedure Handled is
   type R is record
      A : Integer;
      B : Integer;
   end record;

   Wrong : exception;

   function F (N : Integer) return R is
      V : R;
   begin
      if N = 0 then
         raise Wrong;
      end if;
      V.A := N;
      V.B := N + 1;
      if N < 9 then
         return V;
      end if;
   end F;

   function H (X : R; Y : R) return Integer is
   begin
      return 100 * X.A + Y.B;
   end H;

   N : Integer := 1;
begin
   for I in 1 .. 3 loop
      begin
         N := H (F (1), F (I - 2));
      exception
         when Wrong =>
            Put_Line ("wrong" & Integer'Image (N));
      end;
      Put_Line (Integer'Image (N));
   end loop;
   begin
      N := H (F (2), F (9));
   exception
      when Program_Error =>
         Put_Line ("end" & Integer'Image (N));
   end;
   Put_Line (Integer'Image (H (F (3), F (4))));
end Handled;
